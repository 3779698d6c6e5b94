C     Whether a day, a month and a year are a date of the Gregorian
C     calendar, and whether the year is a leap year.
C
      SUBROUTINE DATE(IDAY,MONTH,IYEAR,OK,LEAP)
      INTEGER IDAY,MONTH,IYEAR
      LOGICAL OK,LEAP,LONG
      LEAP=MOD(IYEAR,4).EQ.0.AND.MOD(IYEAR,100).NE.0
     &     .OR.MOD(IYEAR,400).EQ.0
C     The calendar is counted from the first whole year that had it.
      OK=IYEAR.GE.1583.AND.MONTH.GE.1.AND.MONTH.LE.12.AND.IDAY.GE.1
      IF (.NOT.OK) RETURN
C     Up to July the odd months have 31 days, and then the even ones.
      LONG=MONTH.LE.7.EQV.MOD(MONTH,2).EQ.1
      IF (MONTH.EQ.2) THEN
         OK=IDAY.LE.28.OR.LEAP.AND.IDAY.EQ.29
      ELSE
         OK=IDAY.LE.30.OR.LONG.AND.IDAY.EQ.31
      END IF
      END

C     How many days lie between two dates of a year, of which the first
C     comes no later than the second.
C
C     The first is day ID1 of month M1, the second day ID2 of month M2,
C     in the year IYEAR of the Gregorian calendar. N becomes the number.
C
      SUBROUTINE DAYS(ID1,M1,ID2,M2,IYEAR,N)
      IF (M1.EQ.M2) THEN
         N=ID2-ID1
      ELSE
         IF (MOD(IYEAR,4).NE.0) THEN
            LEAP=0
         ELSE
            IF (MOD(IYEAR,100).NE.0) THEN
               LEAP=1
            ELSE
               IF (MOD(IYEAR,400).NE.0) THEN
                  LEAP=0
               ELSE
                  LEAP=1
               END IF
            END IF
         END IF
C        Each month from the first to the one before the second counts
C        whole.
         N=ID2-ID1
         DO 10 M=M1,M2-1
            IF (M.EQ.2) THEN
               N=N+28+LEAP
            ELSE
               IF (M.LT.8) THEN
                  IF (MOD(M,2).EQ.0) THEN
                     N=N+30
                  ELSE
                     N=N+31
                  END IF
               ELSE
                  IF (MOD(M,2).EQ.0) THEN
                     N=N+31
                  ELSE
                     N=N+30
                  END IF
               END IF
            END IF
   10    CONTINUE
      END IF
      END

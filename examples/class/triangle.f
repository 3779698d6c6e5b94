C     What kind of triangle has sides of the lengths I, J and K?
C     After the self-test at the start of The Art of Software Testing
C     (G. J. Myers, 1979).
C
C     ITYPE becomes 0 where there is no such triangle, 1 where it is
C     scalene, 2 where it is isosceles and 3 where it is equilateral.
C
      SUBROUTINE TRIANG(I,J,K,ITYPE)
C     Names that begin with I to N are INTEGER; others have to be typed.
      INTEGER SCALEN,EQUIL
C     There are no named constants: DATA gives a variable its value at
C     the start.
      DATA NONE,SCALEN,ISOSC,EQUIL/0,1,2,3/
      ITYPE=NONE
      IF (MIN0(I,J,K).LE.0) RETURN
C     A side must not be as long as the other two together. Sums could
C     be out of the range of INTEGER; differences of positive numbers
C     are always in it.
      IF (I-J.GE.K.OR.J-K.GE.I.OR.K-I.GE.J) RETURN
      IF (I.EQ.J.AND.J.EQ.K) THEN
         ITYPE=EQUIL
      ELSE IF (I.EQ.J.OR.J.EQ.K.OR.K.EQ.I) THEN
         ITYPE=ISOSC
      ELSE
         ITYPE=SCALEN
      END IF
      END

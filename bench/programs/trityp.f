C     What kind of triangle has sides of the lengths I, J and K?
C
C     ITYPE becomes 1 where it is scalene, 2 where it is isosceles, 3
C     where it is equilateral, and 4 where there is no such triangle.
C     It is written with jumps alone, as before there were block IFs.
C
      SUBROUTINE TRITYP(I,J,K,ITYPE)
      IF (I.LE.0.OR.J.LE.0.OR.K.LE.0) GO TO 50
C     In turn 1, 2 and 3 count for the pairs that are alike.
      ITYPE=0
      IF (I.EQ.J) ITYPE=ITYPE+1
      IF (I.EQ.K) ITYPE=ITYPE+2
      IF (J.EQ.K) ITYPE=ITYPE+3
      IF (ITYPE.NE.0) GO TO 10
      IF (I+J.LE.K.OR.J+K.LE.I.OR.I+K.LE.J) GO TO 50
      ITYPE=1
      GO TO 60
   10 IF (ITYPE.GT.3) GO TO 40
      IF (ITYPE.EQ.1.AND.I+J.GT.K) GO TO 30
      IF (ITYPE.EQ.2.AND.I+K.GT.J) GO TO 30
      IF (ITYPE.EQ.3.AND.J+K.GT.I) GO TO 30
      GO TO 50
   30 ITYPE=2
      GO TO 60
   40 ITYPE=3
      GO TO 60
   50 ITYPE=4
   60 RETURN
      END

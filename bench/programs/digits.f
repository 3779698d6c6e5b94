C     The digits of N, which is 0 or more: how many there are, their
C     sum, and whether the number reads the same from right to left.
C
      SUBROUTINE DIGITS(N,COUNT,SUM,SAME)
      INTEGER COUNT,SUM,REST,BACK
      LOGICAL SAME
      COUNT=0
      SUM=0
      BACK=0
      SAME=.FALSE.
      IF (N.LT.0) RETURN
      REST=N
   10 LAST=MOD(REST,10)
      COUNT=COUNT+1
      SUM=SUM+LAST
C     A number of ten digits could be too large backwards.
      IF (COUNT.LE.9) BACK=10*BACK+LAST
      REST=REST/10
      IF (REST.GT.0) GO TO 10
      SAME=COUNT.LE.9.AND.BACK.EQ.N
      END

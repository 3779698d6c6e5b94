C     Conditions that few values meet.
      SUBROUTINE NEEDLE(I,J,K)
      K=0
      IF (7*I+J.EQ.1000) K=1
      IF (MOD(I,97).EQ.13.AND.J.GT.I) K=K+2
      IF (I*I.EQ.J) K=K+4
      IF (I.GT.50.AND.I.LT.60.AND.J.EQ.I*3+1) K=K+8
      END

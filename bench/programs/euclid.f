C     The greatest common divisor of M and N, which are above 0: the
C     less is taken from the greater until they are alike.
C
      SUBROUTINE EUCLID(M,N,IGCD)
   10 IF (M.EQ.N) GO TO 30
      IF (M.GT.N) GO TO 20
      N=N-M
      GO TO 10
   20 M=M-N
      GO TO 10
   30 IGCD=M
      END

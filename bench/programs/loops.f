      SUBROUTINE LOOPS(K)
      INTEGER M(100)
      DO 10 I=1,100000
      DO 10 J=1,100
   10 M(J)=I+J
      END

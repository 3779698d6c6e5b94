      SUBROUTINE TURN(K)
      INTEGER M(20)
   10 I=K
      J=I+1
      L=J*2
      IF (L.GT.100) GO TO 20
      M(J)=L
      N=M(J)
      NA=N-1
      NB=NA
      NC=NB
      ND=NC
      GO TO 10
   20 RETURN
      END

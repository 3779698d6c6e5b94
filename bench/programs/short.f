      SUBROUTINE SHORT(K)
      IF (K.GT.5) GO TO 10
      I=K+1
      J=I*2
      IF (J.LE.I) GO TO 10
      I=J-K
      K=MAX0(I,J)
      J=K-1
      IF (J.NE.K) I=I+1
      IF (I.LT.0) K=0
      K=K+I
      K=J-I
   10 CONTINUE
      END

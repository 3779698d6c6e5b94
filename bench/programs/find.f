C     Changes the order of the first N elements of M so that element K
C     is what it would be if they were sorted: those before it are no
C     greater, and those behind it no less (C. A. R. Hoare, Algorithm 65,
C     Communications of the ACM 4, 1961).
C
      SUBROUTINE FIND(M,N,K)
      DIMENSION M(8)
C     Element K is among those from LOW to IHIGH.
      LOW=1
      IHIGH=N
   10 IF (LOW.GE.IHIGH) GO TO 80
      KEY=M(K)
      I=LOW
      J=IHIGH
   20 IF (I.GT.J) GO TO 60
   30 IF (M(I).GE.KEY) GO TO 40
      I=I+1
      GO TO 30
   40 IF (M(J).LE.KEY) GO TO 50
      J=J-1
      GO TO 40
   50 IF (I.GT.J) GO TO 20
      KEEP=M(I)
      M(I)=M(J)
      M(J)=KEEP
      I=I+1
      J=J-1
      GO TO 20
   60 IF (J.LT.K) LOW=I
      IF (K.LT.I) IHIGH=J
      GO TO 10
   80 RETURN
      END

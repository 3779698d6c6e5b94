C     Binary search: K becomes a place of KEY among the first N elements
C     of M, which are in ascending order, and 0 where it is not there.
      SUBROUTINE SEARCH(M,N,KEY,K)
      INTEGER M(8)
      L=1
      J=N
   10 IF (L.GT.J) GO TO 40
      K=(L+J)/2
      IF (KEY-M(K)) 20,50,30
   20 J=K-1
      GO TO 10
   30 L=K+1
      GO TO 10
   40 K=0
   50 RETURN
      END

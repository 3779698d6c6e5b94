C     Sorts M, the least first: the greatest of what is left goes up
C     like a bubble, from one place to the next.
C
      SUBROUTINE BUBBLE(M)
      DIMENSION M(6)
      LAST=6
   10 IF (LAST.LE.1) RETURN
C     Behind place LAST the elements are in order.
      DO 20 J=2,LAST
         IF (M(J-1).LE.M(J)) GO TO 20
         KEEP=M(J-1)
         M(J-1)=M(J)
         M(J)=KEEP
   20 CONTINUE
      LAST=LAST-1
      GO TO 10
      END

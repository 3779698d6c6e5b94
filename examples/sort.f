C     Sorts the first N elements of M, the least first, by straight
C     insertion (algorithm S of section 5.2.1 in D. E. Knuth, The Art of
C     Computer Programming, volume 3, 1973).
C
C     The elements behind the first N stay as they are. Where N is no
C     number of elements of M the run stops.
C
      SUBROUTINE SORT(M,N)
C     M is INTEGER by its first letter, so it needs its bound alone.
      DIMENSION M(8)
      IF (N.LT.0.OR.N.GT.8) STOP
C     A DO tests before its first pass: for N below 2 there is none.
      DO 30 J=2,N
C        M(1) to M(J-1) are in order. Those of them above KEY go up by
C        one place, and KEY goes into the gap.
         KEY=M(J)
         I=J-1
C        There are two IF statements, for both operands of .AND. are
C        evaluated always, and M has no element 0.
   10    IF (I.EQ.0) GO TO 20
         IF (M(I).LE.KEY) GO TO 20
         M(I+1)=M(I)
         I=I-1
         GO TO 10
   20    M(I+1)=KEY
   30 CONTINUE
      RETURN
      END

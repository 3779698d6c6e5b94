C     Sorts the first N elements of M, the least first, by straight
C     insertion: those before an element that are greater go up by one
C     place, and it goes into the gap. MOVES is how often one went up.
C
      SUBROUTINE INSERT(M,N,MOVES)
      DIMENSION M(8)
      MOVES=0
      DO 30 J=2,N
         KEY=M(J)
         DO 10 I=J-1,1,-1
            IF (M(I).LE.KEY) GO TO 20
            M(I+1)=M(I)
            MOVES=MOVES+1
   10    CONTINUE
C        The loop that has ended by itself leaves 0 in I.
   20    M(I+1)=KEY
   30 CONTINUE
      END

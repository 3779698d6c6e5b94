C     The shortest ways between N towns, by the algorithm of Floyd
C     (R. W. Floyd, Algorithm 97, Communications of the ACM 5, 1962),
C     and the towns in the order of how far the others are.
C
C     MAP     the road from town I to town J has the length MAP(I,J);
C             there is none where that is 0 or less
C     LIMIT   beyond this a town is far, beyond twice this very far
C     NEXT    NEXT(I,J) is the first town on the way from I to J, or 0
C     IFAR    of each town how far the farthest is that it has a way to
C     IORDER  the towns, those with the least of IFAR first
C     KINDS   how many have none far, some far, some very far
C     NWAYS   between how many pairs there is a way
C     MEAN    how long these ways are on an average, rounded down
C     LONG    how long the longest of them is
C     NBACK   how many of them are as long as the way back
C
      SUBROUTINE TOWNS(MAP,N,LIMIT,NEXT,IFAR,IORDER,KINDS,NWAYS,MEAN,
     1   LONG,NBACK)
      INTEGER MAP(5,5),NEXT(5,5),IFAR(5),IORDER(5),KINDS(3),LEN(5,5)
      LOGICAL MOVED
C     No way is so long.
      DATA NONE/10000/
      DO 10 I=1,N
         DO 10 J=1,N
            LEN(I,J)=NONE
            NEXT(I,J)=0
            IF (MAP(I,J).LE.0) GO TO 10
            LEN(I,J)=MAP(I,J)
            NEXT(I,J)=J
   10 CONTINUE
C     The way over town K may be shorter.
      DO 30 K=1,N
         DO 30 I=1,N
            IF (LEN(I,K).GE.NONE.OR.I.EQ.K) GO TO 30
            DO 20 J=1,N
               L=LEN(I,K)+LEN(K,J)
               IF (L.GE.LEN(I,J).OR.I.EQ.J) GO TO 20
               LEN(I,J)=L
               NEXT(I,J)=NEXT(I,K)
   20       CONTINUE
   30 CONTINUE
      NWAYS=0
      MEAN=0
      LONG=0
      NBACK=0
      DO 50 I=1,N
         IFAR(I)=0
         IORDER(I)=I
         DO 40 J=1,N
            IF (LEN(I,J).GE.NONE.OR.I.EQ.J) GO TO 40
            NWAYS=NWAYS+1
            MEAN=MEAN+LEN(I,J)
            IF (LEN(I,J).EQ.LEN(J,I)) NBACK=NBACK+1
            IFAR(I)=MAX0(IFAR(I),LEN(I,J))
   40    CONTINUE
         LONG=MAX0(LONG,IFAR(I))
   50 CONTINUE
      IF (NWAYS.GT.0) MEAN=MEAN/NWAYS
C     Neighbours are exchanged until they are in order.
   60 MOVED=.FALSE.
      DO 70 I=2,N
         J=IORDER(I-1)
         K=IORDER(I)
         IF (IFAR(J).LE.IFAR(K)) GO TO 70
         IORDER(I-1)=K
         IORDER(I)=J
         MOVED=.TRUE.
   70 CONTINUE
      IF (MOVED) GO TO 60
      DO 80 K=1,3
   80 KINDS(K)=0
      DO 90 I=1,N
         K=1
         IF (IFAR(I).GT.LIMIT) K=2
         IF (IFAR(I)-LIMIT.GT.LIMIT) K=3
         KINDS(K)=KINDS(K)+1
   90 CONTINUE
      END

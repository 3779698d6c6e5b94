C     The transitive closure of a relation (S. Warshall, A Theorem on
C     Boolean Matrices, 1962).
C
C     R(I,J) says whether I is related to J. It becomes .TRUE. where a
C     chain of one relation or more leads from I to J.
C
      SUBROUTINE CLOSUR(R)
C     A test gives the elements of R in the order R(1,1), R(2,1), R(3,1)
C     and on to R(4,4): the first subscript varies fastest.
      LOGICAL R(4,4)
C     After the pass for K, R holds each chain that comes through 1 to K
C     alone. The loops for K and I share their last statement; a jump to
C     it goes on with the next I.
      DO 20 K=1,4
      DO 20 I=1,4
         IF (.NOT.R(I,K)) GO TO 20
         DO 10 J=1,4
   10    R(I,J)=R(I,J).OR.R(K,J)
   20 CONTINUE
      RETURN
      END

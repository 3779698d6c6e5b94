C     The product of two matrices of three rows and columns.
C
      SUBROUTINE MATMUL(MA,MB,MC)
      DIMENSION MA(3,3),MB(3,3),MC(3,3)
      DO 10 I=1,3
         DO 10 J=1,3
            MC(I,J)=0
            DO 10 K=1,3
   10          MC(I,J)=MC(I,J)+MA(I,K)*MB(K,J)
      END

C     IGCD becomes the greatest common divisor of M and N, and 0 where
C     both are 0 (Euclid, Elements, book VII, proposition 2; with
C     remainders in place of repeated differences).
C
      SUBROUTINE EUCLID(M,N,IGCD)
      IGCD=IABS(M)
      J=IABS(N)
C     At label 10 the common divisors of IGCD and J are those of M and
C     N. An arithmetic IF goes to its first, second or third label where
C     its expression is negative, zero or positive. Here it is never
C     negative.
   10 IF (J) 20,30,20
   20 K=MOD(IGCD,J)
      IGCD=J
      J=K
      GO TO 10
   30 RETURN
      END

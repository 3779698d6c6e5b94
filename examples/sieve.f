C     The sieve of Eratosthenes: the primes up to N, the least first.
C
C     M has the primes and, behind them, what it held before. L becomes
C     the number of primes. Where N is above 30 the run stops.
C
      SUBROUTINE SIEVE(N,M,L)
      INTEGER N,M(10),L
      LOGICAL OUT(30)
      L=0
      IF (N.GT.30) STOP
      DO 10 I=1,N
   10 OUT(I)=.FALSE.
      DO 30 I=2,N
         IF (OUT(I)) GO TO 30
         L=L+1
         M(L)=I
C        The multiples below I*I are out already.
         DO 20 J=I*I,N,I
   20    OUT(J)=.TRUE.
   30 CONTINUE
      END

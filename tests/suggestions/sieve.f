C     The sieve of Eratosthenes: P(I) becomes .TRUE. where I is a prime
C     from 2 to N, and NP how many there are. P(I) behind N stays as it
C     is. Where N is not from 1 to 30 the run stops.
      SUBROUTINE SIEVE(P,N,NP)
      LOGICAL P(30)
      NP=0
      IF (N.LT.1.OR.N.GT.30) STOP
      P(1)=.FALSE.
      DO 10 I=2,N
   10 P(I)=.TRUE.
      DO 30 I=2,N
      IF (.NOT.P(I)) GO TO 30
      NP=NP+1
      IF (I.GT.N/I) GO TO 30
      DO 20 J=I*I,N,I
   20 P(J)=.FALSE.
   30 CONTINUE
      END

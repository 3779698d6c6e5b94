C     The middle of three numbers: MIDDLE becomes the one that is
C     neither the least nor the greatest.
C
      SUBROUTINE MID(I,J,K,MIDDLE)
      MIDDLE=K
      IF (J.LT.K) THEN
         IF (I.LT.J) THEN
            MIDDLE=J
         ELSE IF (I.LT.K) THEN
            MIDDLE=I
         END IF
      ELSE
         IF (I.GT.J) THEN
            MIDDLE=J
         ELSE IF (I.GT.K) THEN
            MIDDLE=I
         END IF
      END IF
      END

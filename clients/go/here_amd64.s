#include "textflag.h"

// func here() (goroutine uint64, counter uintptr)
TEXT ·here(SB), NOSPLIT, $0-16
	MOVQ ·numberAt(SB), CX
	TESTQ CX, CX
	JEQ  unknown
	MOVQ (TLS), AX
	MOVQ (AX)(CX*1), AX
	MOVQ AX, goroutine+0(FP)
	MOVQ BP, DX
	MOVQ ·framesUp(SB), CX
	TESTQ CX, CX
	JEQ  found
	MOVQ (DX), DX

found:
	MOVQ 8(DX), AX
	MOVQ AX, counter+8(FP)
	RET

unknown:
	MOVQ $0, goroutine+0(FP)
	MOVQ $0, counter+8(FP)
	RET

// func wordOfGoroutine(at uintptr) uint64
TEXT ·wordOfGoroutine(SB), NOSPLIT, $0-16
	MOVQ at+0(FP), CX
	MOVQ (TLS), AX
	MOVQ (AX)(CX*1), AX
	MOVQ AX, ret+8(FP)
	RET

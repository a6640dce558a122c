# Boot sector for the capture: reads the keyboard by int 16h and tells on the serial port what the BIOS gave.
# A message is three bytes: a tag, then the high and the low byte of AX after int 16h, the tag being the function,
# or, under tag 40, flag bytes 17 and 18, and under 41, flag bytes 96 and 97.
# Words are taken by function 10; Esc changes that to function 00 and back. While Scroll Lock is on, none is taken.

        .intel_syntax noprefix
        .code16
        .globl  start

start:  cli
        xor     ax, ax
        mov     ds, ax
        mov     ss, ax
        mov     sp, 0x7C00
        mov     ax, 0x0305              # repeat rate: delay 1, rate 0B
        mov     bx, 0x010B
        int     0x16
        mov     bl, 0x03
        call    tell
        mov     cx, 0x2C7A              # function 05 puts the word of z
        mov     ah, 0x05
        int     0x16
        mov     bl, 0x05
        call    tell

wait:   sti
        hlt                             # until a key or the clock interrupts
        cli
next:   mov     cx, [0x417]             # the four flag bytes, told when one has changed
        mov     dx, [0x496]
        cmp     cx, [last17]
        jne     flags
        cmp     dx, [last96]
        je      states
flags:  mov     [last17], cx
        mov     [last96], dx
        mov     bl, 0x40
        mov     ah, cl
        mov     al, ch
        call    tell
        mov     bl, 0x41
        mov     ah, dl
        mov     al, dh
        call    tell

states: mov     ah, 0x12                # the shift states, told when changed; this BIOS sets the lamps in int 16h
        int     0x16
        cmp     ax, [last12]
        je      words
        mov     [last12], ax
        mov     bl, 0x12
        call    tell

words:  test    byte ptr [0x417], 0x10  # Scroll Lock: the words stay
        jnz     wait
        mov     ah, 0x11
        int     0x16
        jz      wait
        mov     bl, 0x11
        call    tell
        mov     ah, [taker]
        int     0x16
        mov     bl, [taker]
        call    tell
        cmp     ax, 0x011B              # Esc
        jne     next
        xor     byte ptr [taker], 0x10
        jmp     next

# Tells bl, ah, al. Keeps all but bh.
tell:   push    dx
        push    ax
        mov     bh, al
        mov     dx, 0x3F8
        mov     al, bl
        out     dx, al
        mov     al, ah
        out     dx, al
        mov     al, bh
        out     dx, al
        pop     ax
        pop     dx
        ret

taker:  .byte   0x10
last17: .word   0
last96: .word   0
last12: .word   0

        .org    510
        .word   0xAA55

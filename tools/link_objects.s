// Objects for the rows of tools/link_rows.py, which Debian's aarch64-linux-gnu-as assembles, each alone. These lists of them are linked:
// link main function
// link function main
// link user globals
// link globals user
// link array
// link texts
// link texts main function globals
// link user globals texts2 function main2
// link chain0 chain1 chain2
// link chain2 chain1 chain0
// link main
// link main main
// link function globals
// link user2 globals globals2
// link globals2 user2 globals
// ---- main: a call across objects
        .globl main
        .type main, %function
main:   stp x29, x30, [sp, #-16]!
        mov w0, #41
        bl f
        ldp x29, x30, [sp], #16
        ret
        .size main, .-main
// ---- function: the function that it calls, behind another one
        .type helper, %function
helper: mov w1, #1
        ret
        .size helper, .-helper
        .globl f
        .type f, %function
f:      add w0, w0, #1
        b helper
        .size f, .-f
// ---- user: globals of another object and of its own, through the GOT
        .globl main
        .type main, %function
main:   adrp x0, :got:g
        ldr x0, [x0, :got_lo12:g]
        ldr w0, [x0]
        adrp x1, :got:own
        ldr x1, [x1, :got_lo12:own]
        str w0, [x1]
        adrp x2, :got:h
        ldr x2, [x2, :got_lo12:h]
        adrp x3, :got:g
        ldr x3, [x3, :got_lo12:g]
        ret
        .size main, .-main
        .bss
        .balign 16
        .type own, %object
        .size own, 4
own:    .zero 16
// ---- globals: two globals side by side, and a static one that a pointer is into
        .data
        .balign 16
        .type hidden, %object
        .size hidden, 16
hidden: .word 1, 2, 3, 4
        .globl g
        .type g, %object
        .size g, 4
g:      .word 7
        .balign 16
        .globl h
        .type h, %object
        .size h, 8
h:      .xword hidden + 8
        .balign 16
// ---- globals2: pointers to the globals of another object, to their ends and before their starts
        .data
        .balign 16
        .globl p
        .type p, %object
        .size p, 32
p:      .xword g + 16
        .xword h
        .xword g - 16
        .xword h + 15
// ---- user2: the addresses of all of them
        .globl main
        .type main, %function
main:   adrp x0, :got:p
        ldr x0, [x0, :got_lo12:p]
        adrp x1, :got:h
        ldr x1, [x1, :got_lo12:h]
        adrp x2, :got:main
        ldr x2, [x2, :got_lo12:main]
        bl main
        ret
        .size main, .-main
// ---- array: an array with a pointer one past its end
        .globl main
        .type main, %function
main:   adrp x0, :got:p
        ldr x0, [x0, :got_lo12:p]
        ldr x0, [x0]
        ldr w0, [x0, #-4]
        ret
        .size main, .-main
        .data
        .balign 16
        .globl p
        .type p, %object
        .size p, 8
p:      .xword a + 16
        .balign 16
        .bss
        .balign 16
        .globl a
        .type a, %object
        .size a, 16
a:      .zero 16
// ---- texts: texts by their addresses
        .globl puts
        .type puts, %function
puts:   adrp x0, text2
        add x0, x0, :lo12:text2
        adrp x1, text1 + 2
        add x1, x1, :lo12:text1 + 2
        b puts
        .size puts, .-puts
        .globl main
        .type main, %function
main:   bl puts
        ret
        .size main, .-main
        .section .rodata
        .balign 16
        .type text1, %object
        .size text1, 16
text1:  .asciz "a text"
        .balign 16
        .type text2, %object
        .size text2, 32
text2:  .asciz "a text of two granules"
        .balign 16
        .data
        .balign 16
        .globl words
        .type words, %object
        .size words, 16
words:  .xword text1, text2 + 3
// ---- texts2: a text, and a function behind a page
        .globl far
        .type far, %function
        .zero 4088
far:    adrp x0, text
        add x0, x0, :lo12:text
        b f
        .size far, .-far
        .section .rodata
        .balign 16
        .type text, %object
        .size text, 16
text:   .asciz "text"
        .balign 16
// ---- main2: a function that calls far
        .globl other
        .type other, %function
other:  bl far
        bl main
        ret
        .size other, .-other
// ---- chain0: each calls the next one
        .globl main
        .type main, %function
main:   bl one
        bl two
        ret
        .size main, .-main
// ---- chain1: likewise, and jumps to the one before
        .globl one
        .type one, %function
one:    cbz w0, 1f
        bl two
        b main + 4
1:      ret
        .size one, .-one
// ---- chain2: the last one
        .globl two
        .type two, %function
two:    b one + 8
        bl main
        ret
        .size two, .-two

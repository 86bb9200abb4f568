# Only code: exit(0). System call 2 of xv6 is exit.
    .globl main
    .text
main:
    li a0, 0
    li a7, 2
    ecall

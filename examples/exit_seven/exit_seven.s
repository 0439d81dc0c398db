# Ends at once with exit code 7. The smallest file that loads: an ELF header, one program header
# and three instructions, 132 bytes with no section. Build: see README.md.

    .equ base, 0x10000              # where the code is in memory
    .equ code_at, 120               # where it is in the file
    .equ code_size, 12              # three instructions

    # The ELF header.
    .byte 0x7F, 0x45, 0x4C, 0x46    # e_ident: magic, 64-bit, little-endian, version 1
    .byte 2, 1, 1
    .zero 9
    .half 2                         # e_type: an executable
    .half 243                       # e_machine: RISC-V
    .word 1                         # e_version
    .quad base                      # e_entry
    .quad 64                        # e_phoff
    .quad 0                         # e_shoff
    .word 0                         # e_flags
    .half 64, 56, 1                 # e_ehsize, e_phentsize, e_phnum
    .half 0, 0, 0                   # e_shentsize, e_shnum, e_shstrndx

    # The program header.
    .word 1                         # p_type: PT_LOAD
    .word 7                         # p_flags: read, write, execute
    .quad code_at                   # p_offset
    .quad base, base                # p_vaddr, p_paddr
    .quad code_size                 # p_filesz
    .quad code_size                 # p_memsz
    .quad 4                         # p_align

code:
    addi a7, zero, 93               # exit
    addi a0, zero, 7
    ecall

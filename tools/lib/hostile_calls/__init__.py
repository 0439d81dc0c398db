"""`tools/hostile`: calls of the program that it may have to refuse, and what is due for each.

    rules    what the documents say of arguments, program files and images
    answers  what a call has to answer
    cases    program files, arguments and inputs, random and mutated
    images   saved images, mutated
    whole    all cases of a seed, and calls whose memory is refused
"""

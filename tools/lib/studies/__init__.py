"""`tools/study`: runs over designs, a table with a row for each, and pictures of it.

    design  which runs a study has, by its words
    runs    a run, and the row that it leaves
    tables  the table of a study, row by row
    drawn   the numbers that are drawn of a table, and the picture
"""

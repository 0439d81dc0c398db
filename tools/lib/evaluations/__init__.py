"""`tools/evaluation`: the runs of examples/benchmarks, and the tables of docs/EVALUATION.md that are made of them.

    results  a run, and its numbers
    tables   the tables: which runs each row has, and what stands in its cells
    pages    the tables in a page
"""

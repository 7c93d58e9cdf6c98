"""The model of the scope paper ("01"): what it says of every input, written down once, for tests/ and for compare/.

    base         refusals; words as text; the ten records of a sheet
    text         bytes to ten records, whether these are in shape, and ten records to bytes
    printing     numbers and lines as bytes: what the crate `text` prints and reads
    environment  names, bounds, types: the AST's environment, and a method's
    elision      self, steps, returns: the lowerer, step by step
    methods      lowered types, structs, params, output, force: a method, its used lifetimes, a field's pairs
    visits       the edges of a parameter, and what a visit answers
    listing      a whole sheet: its method, its borrows, its listing
    questions    the kinds of questions of the program `vectors`: how each is asked, and what the model answers
    rust         the oracle: what it is asked, and what it printed as an answer to such a question
    generate     random sheets, and random things made by hand that no sheet gives

Each rule of 01 stands in one place, so that a change of 01 is one edit here; whoever asks the model asks it again. It is held to every answer that tests/vectors.py and tests/readings.py have
written out by hand, and to the Rust's.
"""

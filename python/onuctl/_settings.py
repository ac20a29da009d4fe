"""The settings of the judge by their names, and what each forgives."""

SETTINGS = {
    "modelled": "contents of replies on classes that the model lacks, and values of its own of read-only attributes",
    "unordered": "versions that fall along a port",
    "allow_strays": "frames that nobody sent into the unit",
    "padded": "zeros that a wire adds to short frames",
    "allow_unfinished": "a history without an end line",
    "repeats": "a message that is sent twice in a row, and carried out once",
}

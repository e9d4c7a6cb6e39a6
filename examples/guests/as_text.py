#!/usr/bin/env python3
"""Prints crates/nv_rows/data/built_guests: the built guests that rows run, as hexadecimal digits."""
import pathlib

BUILT = pathlib.Path(__file__).resolve().parent / "built"
WIDTH = 116

print("# The guests of examples/guests/built that the rows run, as examples/guests/as_text.py prints them: ELF files in hexadecimal digits.")
for name in ["heap", "service_1", "service_2", "service_3"]:
    text = (BUILT / name).read_bytes().hex()
    print(f"\ntext {name.replace('_', ' ')}")
    for at in range(0, len(text), WIDTH):
        print(f"hex {text[at : at + WIDTH]}")

"""The law of lowfare once more, as a plain program for people who read no Rattle.

It is written from docs/LAW.md, docs/FORMATS.md and docs/CERTIFICATES.md, and each function names the paragraph that it reads. It is an
opinion and no proof, and it is slow. docs/REFERENCE.md says how it is read, run and compared.
"""

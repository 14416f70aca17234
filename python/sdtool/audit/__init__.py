"""Audits of named objects: who can change them, what changed, what is risky, what they would inherit.

The command sdtool-audit, or python -m sdtool.audit, asks these questions of lists that other tools wrote. docs/AUDIT.md
describes it. Every answer about a descriptor comes from the library, by the module library.
"""

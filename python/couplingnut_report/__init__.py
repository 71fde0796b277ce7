"""The bench report: from a capture of a unit's set-up to a page that says whether the unit may be signed out.

    unit ─────┐                                         ┌─► text
              ├─► reading ─► facts ─► findings ─► report ┼─► jsonpage
    captures ─┘   (the library)       (the verdict)      └─► html, with the pictures ─► site (a folder of recordings)

What passed on the lines, and which values are in force, comes from libcouplingnut alone, through the module `couplingnut`: records with
their samples, both stages of every register, the session. Nothing is decoded here. `reading` asks for it, and `several` for the chips of
one capture; the later modules only select, compare and word what they gave. The command line is `command`; `sentences` has the forms of
numbers, values and places.
"""

"""The commands of tagzirk, a module each. `add` of a module adds the words of its command to the parser."""

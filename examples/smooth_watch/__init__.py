"""What smooth-watch is made of: the manifest, the journal, the machine, and what is shown of them."""

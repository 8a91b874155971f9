"""Captures of the file server, for people: the tables of the protocol, frames, blocks, and the two texts that are made of them."""

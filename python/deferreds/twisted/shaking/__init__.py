"""Runs of a program in which what Twisted and TCP leave open comes otherwise: when a thread goes on, when the network delivers, how much
a read gives, when the machine pauses. A search runs many, until one fails.
"""

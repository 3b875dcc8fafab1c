"""Records a run of a program that uses Twisted as a script and a journal."""

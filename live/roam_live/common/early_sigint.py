"""Handles interrupts during start-up, so it is the first import.

An interrupt while a tool still loads modules ends the tool silently. `run_tool` handles later ones.
"""
from roam_live.common.signals import signal

signal.signal(signal.SIGINT, signal.SIG_DFL)

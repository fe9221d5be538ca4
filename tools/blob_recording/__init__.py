"""The parts of tools/recording.py: messages, readable lines, answers in words, transfers of files, lines of ipmitool, files on disk."""

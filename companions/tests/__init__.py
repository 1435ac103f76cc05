"""Tests of the companions: python3 -m unittest discover -t . -s companions/tests"""

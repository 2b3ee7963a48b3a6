import os
def run():
    os.system(input())

"""For the people who write firmware: scripts as text, listings in words, and a picture of who can touch what.

The programs that run a script are the proved ones, `runner` and `inspect`. Nothing here computes an answer of the
machine: it writes scripts, reads what the programs print, and says it in words.

    script      scripts as bytes
    language    the names that scripts and explanations share
    text        scripts as text
    machine     the programs, and what they print
    explain     listings in words
    picture     who can touch what
    cli         the commands
"""

"""Surveys a site of BACnet/IP controllers, reads and writes points of them, tells monitoring.

It sends requests with bactool, which is proved; this package is not. Its modules, from below:

    streams, parsing                    streams, files and texts; the words of the program
    standard, decimals                  numbers and their names; Reals
    bodies, values                      tags and bodies of requests; values, and why one is missing
    messages                            headers, and how an answer ends a request
    tools                               bactool is run, for many controllers at the same time
    points                              the words that say what is asked
    session                             the requests of one bacrun; scans of addresses
    controller, device                  one controller is asked; what its device has
    sweep, survey                       stations behind routers; the devices at addresses
    page, report                        pages; a survey as lines, CSV, JSON or an EDE file
    poll, check                         the other commands that change nothing
    watch                               points in the course of time
    place, write                        where a value goes, and the commands that write it
    capture/pcap                        the datagrams of a capture
    capture/talks                       requests with their answers
    capture/lines                       these in words
    capture/trace                       a script for bactrace
    capture/command                     the summary, and the command
    main                                the program
"""

VERSION = "0.4.0"

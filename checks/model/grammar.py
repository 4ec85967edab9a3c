"""What random scripts are made of: for each topic the lines with which it begins, and the forms of the lines that follow.

In a form, a word in capital letters is replaced by a value of that name (values.py), and `a|b` by one of these words. A word with `?` at its end
is often left out, and so is a whole line with `?` in front. A number in front of a form says how many times as likely it is as others."""

TOPICS = {
    'queue': ("""
        add URI
        add URI""", """
        3 add URI
        2 addid URI
        3 addid URI POSITION
        delete RANGE
        deleteid ID
        2 move RANGE PLACE
        moveid ID PLACE
        swap PLACE PLACE
        swapid ID ID
        shuffle RANGE?
        prio PRIORITY RANGE RANGE?
        prioid PRIORITY ID ID?
        playlistinfo RANGE?
        playlistid ID?
        plchanges VERSION RANGE?
        4 plchangesposid VERSION RANGE?
        ? clear
        play PLACE"""),
    'playing': ("""
        add URI
        add URI
        ? add ""
        play""", """
        play
        2 play GOOD_PLACE
        playid ID
        pause
        pause 0|1
        stop
        3 next
        2 previous
        2 seek GOOD_PLACE TIME
        2 seekid ID TIME
        2 seekcur TIME
        3 seekcur SIGNED_TIME
        4 status
        currentsong
        clearerror
        3 deleteid ID
        delete RANGE
        add URI
        swapid ID ID
        repeat|random|consume 0|1
        single 0|1|oneshot
        toggleoutput 0"""),
    'modes': ("""
        add ""
        add URI
        random|random|repeat 1
        ? random|consume|repeat|single 1
        ? prioid PRIORITY ID
        play""", """
        random 0|1|1
        repeat 0|1
        2 single 0|1|oneshot
        2 consume 0|1|oneshot
        2 play
        2 playid ID
        6 next
        3 previous
        stop
        pause
        3 prioid PRIORITY ID
        3 deleteid ID
        delete RANGE
        ? clear
        addid URI POSITION
        swapid ID ID
        shuffle
        crossfade 0|1|1|3601
        setvol 0|40|100|101
        getvol
        outputs
        enableoutput|disableoutput 0|0|1
        3 status"""),
    'fades': ("""
        crossfade 1|1|2|3600
        add URI
        add URI
        ? add URI
        play""", """
        3 crossfade 0|0|1|1|2|3600
        seek GOOD_PLACE TIME
        2 seekcur TIME
        2 seekcur SIGNED_TIME
        2 single 0|0|1|oneshot
        consume 0|1|oneshot
        random 0|1
        repeat 0|1
        deleteid ID
        2 deleteid NEXT_ID
        swapid ID NEXT_ID
        prioid PRIORITY ID
        add URI
        next
        previous
        pause
        stop
        play
        setvol 40|100
        2 status"""),
    'library': ("""
        """, """
        4 find FILTER WINDOW?
        4 search FILTER WINDOW?
        2 findadd FILTER
        2 searchadd FILTER
        list TAG
        2 list TAG FILTER
        4 count FILTER
        lsinfo URI?
        listall URI?
        add URI
        update|rescan URI?
        playlistinfo
        status"""),
    'shelf': ("""
        add URI
        ? add URI
        save LIST""", """
        save LIST
        load LIST
        2 load LIST LIST_RANGE
        2 listplaylist LIST
        listplaylistinfo LIST
        listplaylists
        3 playlistadd LIST URI
        playlistclear LIST
        rm LIST
        2 playlistdelete LIST LIST_PLACE
        3 playlistmove LIST LIST_PLACE LIST_PLACE
        rename LIST LIST
        rename LIST NEW_LIST
        delete RANGE
        sticker set playlist LIST STICKER STICKER_TEXT
        sticker list playlist LIST
        update
        idle stored_playlist|sticker"""),
    'stickers': ("""
        save LIST
        sticker set song|playlist x r 5
        sticker set song URI STICKER STICKER_TEXT""", """
        4 sticker set song URI STICKER STICKER_TEXT
        4 sticker set playlist LIST STICKER STICKER_TEXT
        3 sticker STICKER_ACTION STICKER_TARGET STICKER
        2 sticker delete|list STICKER_TARGET
        2 sticker find song|playlist TARGET_OR_ALL STICKER
        4 sticker find song|playlist TARGET_OR_ALL r =|<|>|>|~ STICKER_TEXT
        sticker get|list|put song|playlist|Song|album URI STICKER?
        2 rename LIST NEW_LIST
        rm LIST
        save LIST
        update
        idle sticker"""),
    'messages': ("""
        subscribe x
        ? subscribe CHANNEL""", """
        3 subscribe CHANNEL
        2 unsubscribe CHANNEL
        channels
        4 sendmessage CHANNEL MESSAGE
        3 readmessages
        2 idle message|subscription
        idle message subscription
        close
        noidle
        setvol 5|6"""),
    'partitions': ("""
        newpartition k
        ? subscribe x
        ? partition k
        ? moveoutput out0""", """
        2 newpartition PARTITION
        5 partition PARTITION
        3 delpartition PARTITION
        listpartitions
        6 moveoutput out0|out0|out0|out0|out1
        2 outputs
        2 toggleoutput 0
        enableoutput|disableoutput 0
        2 add URI
        2 play
        pause|stop|next
        random 1
        shuffle
        2 subscribe CHANNEL
        2 sendmessage x MESSAGE
        readmessages
        channels
        setvol 7|8
        repeat 0|1
        update
        save LIST
        2 idle SUBSYSTEM
        3 idle output
        noidle
        2 status"""),
    'idle': ("""
        """, """
        8 idle SUBSYSTEM? SUBSYSTEM?
        3 noidle
        add URI
        setvol 5|6
        repeat 0|1
        play
        stop
        toggleoutput 0
        save LIST
        sticker set song URI r STICKER_TEXT
        subscribe CHANNEL
        sendmessage CHANNEL MESSAGE
        update
        ping"""),
    'connection': ("""
        """, """
        ping|commands|notcommands|tagtypes|close|nosuch
        kill ODD?
        idle SUBSYSTEM
        noidle ODD?
        status
        command_list_begin x
        ping MANY_WORDS
        ODD ODD?
        2 BROKEN"""),
    'tags': ("""
        """, """
        3 tagtypes
        tagtypes clear|all
        tagtypes all|reset|Clear Artist
        3 tagtypes enable|disable KNOWN_TAG KNOWN_TAG?
        find FILTER
        playlistinfo
        currentsong
        lsinfo
        add URI
        listplaylistinfo LIST
        playlistadd LIST URI"""),
    'selections': ("""
        """, """
        4 find|search FILTER SORT? WINDOW?
        2 find|search ALL_SONGS SORT WINDOW?
        findadd ALL_SONGS SORT WINDOW? AT?
        4 findadd|searchadd FILTER SORT? WINDOW? AT?
        3 playlistfind|playlistsearch FILTER
        2 searchaddpl LIST FILTER SORT? WINDOW?
        4 list KNOWN_TAG FILTER? GROUP? GROUP?
        2 list KNOWN_TAG GROUP GROUP?
        list album|ALBUM|artist TEXT GROUP?
        4 count FILTER? GROUP
        count FILTER? GROUP? GROUP?
        find|count|findadd FILTER? OPTIONS
        listplaylist LIST
        playlist"""),
    'everyday': ("""
        """, """
        3 add URI POSITION
        2 load LIST LIST_RANGE POSITION
        save LIST
        stats
        decoders|urlhandlers|listmounts|replay_gain_status|playlist
        replay_gain_mode off|track
        2 volume 5|+5|-5|-100|101|+0|--1
        getvol
        albumart|readpicture URI 0|x
        readcomments URI
        3 listallinfo|listall|lsinfo URI?
        play|playid -1|-2|0
        idle neighbor|mount|playlist
        status
        playlistinfo
        deleteid ID"""),
}
ONLY_EVERYDAY = ('tags', 'selections', 'everyday')
# Topics in which steps of the decoder are frequent.
SOUND = ('playing', 'modes', 'fades', 'partitions')
# Topics in which more can go wrong are chosen more often.
LIKELY = {'playing': 3, 'modes': 3, 'fades': 4, 'partitions': 3, 'selections': 3, 'queue': 2, 'library': 2, 'stickers': 2, 'shelf': 2}


def forms_of(text):
    """The forms of a topic, each repeated as many times as its number says."""
    found = []
    for line in filter(None, map(str.strip, text.split('\n'))):
        count, _, form = line.partition(' ')
        found += [form] * int(count) if count.isdigit() else [line]
    return found


OPENINGS = {topic: forms_of(opening) for topic, (opening, _) in TOPICS.items()}
FORMS = {topic: forms_of(forms) for topic, (_, forms) in TOPICS.items()}

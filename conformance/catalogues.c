/* The catalogues that the cases run on, beside the sample, and the titles of offices. */
#include "tester.h"

/* No two tracks have the same title or duration, so that every change of track changes both. Track 0 has segments of 30
 * seconds and more, as 4.4.5 of the suite asks. Groups with tracks: 1, 3, 4 and 6 below group 0, and 5, 7 and 8 below group 3. */
static const group_line archive_groups[] = {
    {0, 0}, /* 0 */
    {0, 4}, /* 1: tracks 0 to 3 */
    {0, 0}, /* 2: none, so that it is no place for a group move */
    {0, 3}, /* 3: tracks 4 to 6 */
    {0, 2}, /* 4: tracks 7 and 8 */
    {3, 1}, /* 5: track 9 */
    {0, 3}, /* 6: tracks 10 to 12 */
    {3, 2}, /* 7: tracks 13 and 14 */
    {3, 1}, /* 8: track 15 */
};

static const track_line archive_tracks[] = {
    {15000, 40, "Witness statement of the harbour master", 4, {0, 3000, 7000, 11000}}, /* 0 */
    {9000, 10, "Dictation 1", 0, {0}},                                                 /* 1 */
    {12000, 30, "Dictation 2, for the board", 2, {0, 6000}},                           /* 2 */
    {4000, 10, "Dictation 3", 0, {0}},                                                 /* 3 */
    {5000, 5, "Letter to the mayor", 0, {0}},                                          /* 4 */
    {5100, 9, "Letter to the bank", 0, {0}},                                           /* 5 */
    {5200, 7, "Letter to the insurer", 0, {0}},                                        /* 6 */
    {3100, 20, "Caf\xC3\xA9, side A", 0, {0}},                                         /* 7 */
    {3200, 15, "Caf\xC3\xA9, side B", 0, {0}},                                         /* 8 */
    {7000, 1, "Annex", 0, {0}},                                                        /* 9 */
    {3300, 3, "Minutes, Monday", 0, {0}},                                              /* 10 */
    {3400, 3, "Minutes, Tuesday", 0, {0}},                                             /* 11 */
    {3500, 1, "Minutes, Wednesday", 0, {0}},                                           /* 12 */
    {3600, 2, "Second annex, first part", 0, {0}},                                     /* 13 */
    {3700, 4, "Second annex, last part", 0, {0}},                                      /* 14 */
    {3800, 6, "Third annex", 0, {0}},                                                  /* 15 */
};

/* The archive's stamps, so its orders are the same. Of neighbours, in any of the orders, some have both alike, some the title
 * alone, some the duration alone, and some neither. */
static const track_line twins_tracks[] = {
    {9000, 40, "Dictation", 0, {0}},  /* 0 */
    {9000, 10, "Dictation", 0, {0}},  /* 1 */
    {12000, 30, "Dictation", 0, {0}}, /* 2 */
    {12000, 10, "Letter", 0, {0}},    /* 3 */
    {12000, 5, "Letter", 0, {0}},     /* 4 */
    {12000, 9, "Letter", 0, {0}},     /* 5 */
    {9000, 7, "Letter", 0, {0}},      /* 6 */
    {9000, 20, "Letter", 0, {0}},     /* 7 */
    {9000, 15, "Minutes", 0, {0}},    /* 8 */
    {7000, 1, "Annex", 0, {0}},       /* 9 */
    {12000, 3, "Minutes", 0, {0}},    /* 10 */
    {12000, 3, "Minutes", 0, {0}},    /* 11 */
    {9000, 1, "Minutes", 0, {0}},     /* 12 */
    {7000, 2, "Annex", 0, {0}},       /* 13 */
    {3700, 4, "Annex", 0, {0}},       /* 14 */
    {7000, 6, "Annex", 0, {0}},       /* 15 */
};
#define twins_groups archive_groups

static const group_line long_titles_groups[] = {{0, 1}, {0, 1}};

#define INTERVIEW_17                                                                                                           \
    "Interview 17-01.Interview 17-02.Interview 17-03.Interview 17-04."                                                         \
    "Interview 17-05.Interview 17-06.Interview 17-07.Interview 17-08."
#define INTERVIEW_18                                                                                                           \
    "Interview 18-11.Interview 18-12.Interview 18-13.Interview 18-14."                                                         \
    "Interview 18-15.Interview 18-16.Interview 18-17.Interview 18-18."
static const track_line long_titles_tracks[] = {{1000, 0, INTERVIEW_17, 0, {0}}, {2000, 0, INTERVIEW_18, 0, {0}}};

/* An hour at the greatest playback speed, which is nearly four times that of the recording, is 1,424,487 hundredths of it. */
static const group_line meeting_groups[] = {{0, 1}};
static const track_line meeting_tracks[] = {{1500000, 0, "Council meeting, with the public's questions", 0, {0}}};

/* With characters of two octets, and longer than an answer at the least ATT_MTU. */
const char *const SAMPLE_OFFICE[] = {u8"Frau Weiß, 3. Mai: die Überfahrt", NULL, NULL, NULL};

/* Of the archive's group 1: track 0 is called as the card calls track 1, and the tracks 2 and 3 alike. The others keep the card's
 * titles. */
const char *const ARCHIVE_OFFICE[sizeof archive_tracks / sizeof archive_tracks[0]] = {
    "Dictation 1",
    NULL,
    "K\xC3\xB6nig, 3 May",
    "K\xC3\xB6nig, 3 May",
};

const char *const LONG_TITLES_OFFICE[] = {
    "Z. Brandt 03-01.Z. Brandt 03-02.Z. Brandt 03-03.Z. Brandt 03-04."
    "Z. Brandt 03-05.Z. Brandt 03-06.Z. Brandt 03-07.Z. Brandt 03-08.",
    "Z. Brandt 04-11.Z. Brandt 04-12.Z. Brandt 04-13.Z. Brandt 04-14."
    "Z. Brandt 04-15.Z. Brandt 04-16.Z. Brandt 04-17.Z. Brandt 04-18.",
};

const catalogue_lines ARCHIVE_LINES = LINES(archive);
const catalogue_lines TWINS_LINES = LINES(twins);
const catalogue_lines LONG_TITLES_LINES = LINES(long_titles);
const catalogue_lines MEETING_LINES = LINES(meeting);

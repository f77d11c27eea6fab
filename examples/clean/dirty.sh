#!/bin/sh
# Prints a sheet of 240 addresses with slips of the kinds that people make: each row by its number alone.
#
#   sh dirty.sh > dirty.csv
#
# The rules and masters that it is to be cleaned by are those of ../postal.
awk 'BEGIN {
    split("EH7 4AA|EH8 9YL|G1 1XQ|G2 4JR|AB10 1AB|DD1 4HN|KA6 7PD|ZZ9 9ZZ", zips, "|")
    split("Edinburgh|Edinburgh|Glasgow|Glasgow|Aberdeen|Dundee|Ayr|Nowhere", cities, "|")
    split("High Street|Mill Lane|The Square|Station Road|Church Row", streets, "|")
    split("Lothian||Strathclyde|Fife", regions, "|")
    split("UK|Scotland|", countries, "|")
    print "id,zip,street,city,region,country,remark"
    for (row = 1; row <= 240; row++) {
        place = (row * 5) % 8 + 1
        zip = zips[place]
        city = cities[place]
        if (row % 6 == 1) zip = tolower(zip)
        if (row % 11 == 3) zip = ""
        if (row % 4 == 2) city = ""
        if (row % 7 == 5) city = "Ednburgh"
        remark = ""
        if (row % 40 == 9) remark = "\"flat 2, left\""
        print row "," zip "," (row * 7) % 90 + 1 " " streets[row % 5 + 1] "," city "," regions[row % 4 + 1] "," \
            countries[row % 3 + 1] "," remark
    }
}'

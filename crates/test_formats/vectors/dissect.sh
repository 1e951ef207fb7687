#!/bin/sh
# Lines of hexadecimal, a PDU each, dissected by Wireshark's tshark (Debian's tshark): the command and the sequence
# number of each, and as its last column what tshark complains of, which should be empty.
set -e
folder=$(mktemp -d)
# text2pcap takes octets by twos behind their offset; each line is a TCP segment to port 2775, that of SMPP.
while read -r line; do
    echo "$line" | sed 's/../ &/g; s/^/000000/'
done > "$folder/octets"
text2pcap -q -T 50000,2775 "$folder/octets" "$folder/octets.pcap"
tshark -r "$folder/octets.pcap" -d tcp.port==2775,smpp -T fields -e smpp.command_length -e smpp.command_id -e smpp.sequence_number -e _ws.malformed -e _ws.expert.message
rm -r "$folder"

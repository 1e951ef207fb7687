#!/usr/bin/perl
# What a stock Net::SMPP script does with a centre: binds, submits texts of each kind, and waits for their receipts.
#   net_smpp.pl PORT KIND NAME PASSWORD FROM TO
# KIND is transmitter, receiver or transceiver. A transmitter submits, a receiver takes five receipts, a transceiver does both. Prints a
# line for each thing that happened.
use strict;
use warnings;
use utf8;
use Encode qw(encode);
use Net::SMPP;

my ($port, $kind, $name, $password, $from, $to) = @ARGV;
$| = 1;
$SIG{ALRM} = sub { print "timeout\n"; exit 1 };
alarm 40;
my $new = "new_$kind";
my ($smpp, $answer) = Net::SMPP->$new(
    '127.0.0.1', port => $port, system_id => $name, password => $password, smpp_version => 0x34, interface_version => 0x34,
    system_type => '', addr_ton => 0, addr_npi => 0, address_range => '',
) or die "no connection: $!";
printf "bound %08x\n", $answer->status;
exit 1 if $answer->status;

my $receipts = 0;

sub take {
    my $pdu = shift;
    return unless $pdu->cmd == Net::SMPP::CMD_deliver_sm;
    print "receipt $pdu->{short_message}\n";
    $smpp->deliver_sm_resp(seq => $pdu->seq, message_id => '', status => 0);
    $receipts++;
}

# Receipts may come before the answer does.
sub submit {
    my ($what, @how) = @_;
    my $seq = $smpp->submit_sm(
        async => 1, source_addr_ton => 1, source_addr_npi => 1, source_addr => $from, dest_addr_ton => 1, dest_addr_npi => 1,
        destination_addr => $to, registered_delivery => 1, @how,
    ) or die "not sent: $!";
    while (my $pdu = $smpp->read_pdu) {
        if ($pdu->cmd == Net::SMPP::CMD_submit_sm_resp && $pdu->seq == $seq) {
            printf "submitted %s: %08x %s\n", $what, $pdu->status, $pdu->{message_id} // '';
            return;
        }
        take($pdu);
    }
    die "no answer: $!";
}

if ($kind ne 'receiver') {
    submit('a short text', data_coding => 0, short_message => "hello of a $kind");
    submit('UCS2', data_coding => 8, short_message => encode('UTF-16BE', 'жук'));
    submit('400 characters as payload', data_coding => 0, short_message => '', message_payload => 'a' x 400);
    for my $part (1, 2) {
        submit(
            "part $part of 2", data_coding => 0, short_message => "part $part", sar_msg_ref_num => pack('n', 300),
            sar_total_segments => pack('C', 2), sar_segment_seqnum => pack('C', $part),
        );
    }
}
if ($kind ne 'transmitter') {
    while ($receipts < 5 and my $pdu = $smpp->read_pdu) {
        take($pdu);
    }
}
my $end = $smpp->unbind;
printf "unbound %08x\n", $end ? $end->status : -1;

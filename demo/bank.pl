#!/usr/bin/perl
# A bank's application, by a stock Net::SMPP: it binds, submits a code with a receipt wanted, waits for the receipt, and leaves.
#   bank.pl PORT NAME PASSWORD FROM TO TEXT
use strict;
use warnings;
use Net::SMPP;

my ($port, $name, $password, $from, $to, $text) = @ARGV;
$| = 1;
$SIG{ALRM} = sub { print "the bank waited in vain\n"; exit 1 };
alarm 30;
my ($smpp, $bound) = Net::SMPP->new_transceiver(
    '127.0.0.1', port => $port, system_id => $name, password => $password, smpp_version => 0x34, interface_version => 0x34,
    system_type => '', addr_ton => 0, addr_npi => 0, address_range => '',
) or die "no connection: $!";
$bound->status and die sprintf("bind refused: command_status %d\n", $bound->status);
print "bound as $name\n";

my $seq = $smpp->submit_sm(
    async => 1, source_addr_ton => 1, source_addr_npi => 1, source_addr => $from, dest_addr_ton => 1, dest_addr_npi => 1,
    destination_addr => $to, registered_delivery => 1, data_coding => 0, short_message => $text,
) or die "not sent: $!";
my ($is_accepted, $receipt);
# The receipt may precede the answer.
while (!$is_accepted || !defined $receipt) {
    my $pdu = $smpp->read_pdu or die "the centre closed the session\n";
    if ($pdu->cmd == Net::SMPP::CMD_submit_sm_resp && $pdu->seq == $seq) {
        $pdu->status and die sprintf("not accepted: command_status %d\n", $pdu->status);
        print "accepted as message $pdu->{message_id}\n";
        $is_accepted = 1;
    } elsif ($pdu->cmd == Net::SMPP::CMD_deliver_sm) {
        $smpp->deliver_sm_resp(seq => $pdu->seq, message_id => '', status => 0);
        $receipt = $pdu->{short_message};
    }
}
print "receipt: $receipt\n";
$smpp->unbind;

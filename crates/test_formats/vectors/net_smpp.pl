#!/usr/bin/perl
# Writes PDUs by Net::SMPP (Debian's libnet-smpp-perl), an implementation of SMPP v3.4 that knows nothing of this one.
# A plain listener on loopback takes what the client sends; each PDU is printed as a line of hexadecimal.
use strict;
use warnings;
use IO::Socket::INET;
use Net::SMPP;

my $listener = IO::Socket::INET->new(LocalAddr => '127.0.0.1', LocalPort => 0, Listen => 1, Proto => 'tcp') or die;
my $port = $listener->sockport;
my $child = fork;
if (!$child) {
    my $smpp = Net::SMPP->new_connect('127.0.0.1', port => $port, async => 1, smpp_version => 0x34) or die;
    $smpp->bind_receiver(system_id => 'app1', password => 'secret', system_type => 'VMA', interface_version => 0x34, address_range => '4477009');
    $smpp->bind_transmitter(system_id => 'app1', password => 'secret', interface_version => 0x34);
    $smpp->bind_transceiver(system_id => 'app1', password => 'secret', interface_version => 0x34);
    $smpp->submit_sm(source_addr_ton => 1, source_addr_npi => 1, source_addr => '447700900001',
        dest_addr_ton => 1, dest_addr_npi => 1, destination_addr => '447700900456',
        validity_period => '000001000000000R', registered_delivery => 1, data_coding => 0, short_message => 'hello');
    $smpp->submit_sm(service_type => 'CMT', source_addr_ton => 5, source_addr_npi => 0, source_addr => 'INFO',
        dest_addr_ton => 1, dest_addr_npi => 1, destination_addr => '447700900456',
        esm_class => 0x40, priority_flag => 1, schedule_delivery_time => '240301005958004+', data_coding => 8,
        short_message => pack('H*', '0608041234020104160435043B'));
    $smpp->submit_sm(source_addr => '', destination_addr => '447700900456', short_message => '',
        message_payload => 'a' x 20, sar_msg_ref_num => pack('n', 0x1234), sar_total_segments => pack('C', 2), sar_segment_seqnum => pack('C', 1),
        user_message_reference => pack('n', 7));
    $smpp->deliver_sm(source_addr_ton => 1, source_addr_npi => 1, source_addr => '447700900456',
        dest_addr_ton => 1, dest_addr_npi => 1, destination_addr => '447700900001', esm_class => 4,
        short_message => 'id:0000000001 stat:DELIVRD', receipted_message_id => "0000000001\0", message_state => pack('C', 2));
    $smpp->query_sm(message_id => '0000000001', source_addr_ton => 1, source_addr_npi => 1, source_addr => '447700900001');
    $smpp->cancel_sm(message_id => '0000000001', source_addr_ton => 1, source_addr_npi => 1, source_addr => '447700900001',
        dest_addr_ton => 1, dest_addr_npi => 1, destination_addr => '447700900456');
    $smpp->enquire_link();
    $smpp->unbind();
    $smpp->bind_transceiver_resp(seq => 3, status => 0, system_id => 'smsc', sc_interface_version => pack('C', 0x34));
    $smpp->bind_transceiver_resp(seq => 3, status => 0x0E, system_id => '');
    $smpp->submit_sm_resp(seq => 4, status => 0, message_id => '0000000001');
    $smpp->deliver_sm_resp(seq => 7, status => 0, message_id => '');
    $smpp->query_sm_resp(seq => 8, status => 0, message_id => '0000000001', final_date => '240229235958000+', message_state => 2, error_code => 0);
    $smpp->cancel_sm_resp(seq => 9, status => 0x11);
    $smpp->enquire_link_resp(seq => 10, status => 0);
    $smpp->unbind_resp(seq => 11, status => 0);
    $smpp->generic_nack(seq => 12, status => 3);
    close $smpp;
    exit 0;
}
my $peer = $listener->accept or die;
local $/;
my $octets = <$peer>;
waitpid $child, 0;
while (length $octets) {
    my $length = unpack 'N', $octets;
    print uc(unpack 'H*', substr $octets, 0, $length, ''), "\n";
}

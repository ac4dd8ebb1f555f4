# A look into a field of the streams is a call of looks.rs, and so is one at the frames that are due.
s/\.(local_max_data|data_recvd|max_remote|max_streams_dirty)\b/.\1()/g
s/\b(client|server)\.(recv|pending|receive_window|receive_window_shrink_debt)\b([^(])/\1.\2()\3/g
s/\brecv\.pending\.(stop_sending|max_data)/recv.state.due().\1/
s/([^.])\bpending\.(stop_sending|max_data|max_stream_id)/\1client.due().\2/
s/([^.])\bpending\.reset_stream/\1server.due().reset_stream/
s/\.events\b/.events()/

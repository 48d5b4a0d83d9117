//! The declarations of `keycount.h`. Nothing compares the two: they change together.

use std::ffi::c_void;

#[derive(Debug)]
#[repr(C)]
pub struct Handle {
    pub at: *mut c_void,
}

/// A partition that a completed generation granted to a member that did not have it.
#[derive(Clone, Copy, Debug, Default)]
#[repr(C)]
pub struct MoveRow {
    pub generation: u32,
    pub partition: u32,
    pub last: u32,
    pub holder: u32,
}

unsafe extern "C" {
    pub fn keycount_cluster_new(
        cluster: *mut Handle,
        partitions: *const u32,
        topics: usize,
        seed: *const u8,
        seed_len: usize,
    ) -> u32;
    pub fn keycount_cluster_free(cluster: *mut Handle) -> u32;
    pub fn keycount_cluster_append(
        cluster: *mut Handle,
        topic: u32,
        key: *const u8,
        key_len: usize,
        partition: *mut u32,
        offset: *mut u32,
    ) -> u32;
    pub fn keycount_cluster_join(
        cluster: *mut Handle,
        name: *const u8,
        name_len: usize,
        member: *mut u32,
    ) -> u32;
    pub fn keycount_cluster_join_kept(
        cluster: *mut Handle,
        name: *const u8,
        name_len: usize,
        member: *mut u32,
    ) -> u32;
    pub fn keycount_cluster_take_over(
        cluster: *mut Handle,
        name: *const u8,
        name_len: usize,
        member: *mut u32,
    ) -> u32;
    pub fn keycount_cluster_rejoin(
        cluster: *mut Handle,
        member: u32,
        generation: u32,
        claim: *const u32,
        claim_len: usize,
    ) -> u32;
    pub fn keycount_cluster_sync(
        cluster: *mut Handle,
        member: u32,
        generation: *mut u32,
        partitions: *mut u32,
        partitions_room: usize,
        offsets: *mut u32,
        offsets_room: usize,
        count: *mut usize,
    ) -> u32;
    pub fn keycount_cluster_leave(cluster: *mut Handle, member: u32) -> u32;
    pub fn keycount_cluster_lose(cluster: *mut Handle, member: u32) -> u32;
    pub fn keycount_cluster_commit(
        cluster: *mut Handle,
        member: u32,
        generation: u32,
        partition: u32,
        from: u32,
        keys: *const u32,
        keys_len: usize,
        committed: *mut u32,
    ) -> u32;
    pub fn keycount_cluster_next_step(cluster: *mut Handle, member: u32, step: *mut u32) -> u32;
    pub fn keycount_cluster_phase(cluster: *mut Handle, phase: *mut u32) -> u32;
    pub fn keycount_cluster_generation(cluster: *mut Handle, generation: *mut u32) -> u32;
    pub fn keycount_cluster_settled(cluster: *mut Handle, settled: *mut u32) -> u32;
    pub fn keycount_cluster_partitions(cluster: *mut Handle, partitions: *mut u32) -> u32;
    pub fn keycount_cluster_keys(cluster: *mut Handle, keys: *mut u32) -> u32;
    pub fn keycount_cluster_members(
        cluster: *mut Handle,
        members: *mut u32,
        room: usize,
        count: *mut usize,
    ) -> u32;
    pub fn keycount_cluster_granted(
        cluster: *mut Handle,
        member: u32,
        partitions: *mut u32,
        room: usize,
        count: *mut usize,
    ) -> u32;
    pub fn keycount_cluster_assigned(
        cluster: *mut Handle,
        member: u32,
        partitions: *mut u32,
        room: usize,
        count: *mut usize,
    ) -> u32;
    pub fn keycount_cluster_moves(
        cluster: *mut Handle,
        from: usize,
        moves: *mut MoveRow,
        room: usize,
        count: *mut usize,
    ) -> u32;
    pub fn keycount_cluster_owner(cluster: *mut Handle, partition: u32, member: *mut u32) -> u32;
    pub fn keycount_cluster_name(
        cluster: *mut Handle,
        member: u32,
        name: *mut u8,
        room: usize,
        count: *mut usize,
    ) -> u32;
    pub fn keycount_cluster_member_named(
        cluster: *mut Handle,
        name: *const u8,
        name_len: usize,
        member: *mut u32,
    ) -> u32;
    pub fn keycount_cluster_kept(cluster: *mut Handle, member: u32, kept: *mut u32) -> u32;
    pub fn keycount_cluster_end(cluster: *mut Handle, partition: u32, offset: *mut u32) -> u32;
    pub fn keycount_cluster_committed(
        cluster: *mut Handle,
        partition: u32,
        offset: *mut u32,
    ) -> u32;
    pub fn keycount_cluster_read(
        cluster: *mut Handle,
        partition: u32,
        from: u32,
        keys: *mut u32,
        room: usize,
        count: *mut usize,
    ) -> u32;
    pub fn keycount_cluster_key(
        cluster: *mut Handle,
        number: u32,
        key: *mut u8,
        room: usize,
        count: *mut usize,
    ) -> u32;
    pub fn keycount_cluster_count(cluster: *mut Handle, number: u32, count: *mut u64) -> u32;
    pub fn keycount_murmur2(key: *const u8, key_len: usize) -> u32;
    pub fn keycount_place(
        partitions: u32,
        key: *const u8,
        key_len: usize,
        partition: *mut u32,
    ) -> u32;
    pub fn keycount_place_all(
        partitions: u32,
        bytes: *const u8,
        bytes_len: usize,
        ends: *const usize,
        keys: usize,
        places: *mut u32,
        room: usize,
    ) -> u32;
    pub fn keycount_assign(
        members: *const u32,
        members_len: usize,
        owners: *const u32,
        partitions: usize,
        assigned: *mut u32,
        room: usize,
    ) -> u32;
    pub fn keycount_withhold(
        members: *const u32,
        members_len: usize,
        target: *const u32,
        targets: usize,
        owners: *const u32,
        partitions: usize,
        assigned: *mut u32,
        room: usize,
    ) -> u32;
    pub fn keycount_consumer_new(consumer: *mut Handle, partitions: u32) -> u32;
    pub fn keycount_consumer_free(consumer: *mut Handle) -> u32;
    pub fn keycount_consumer_joined(consumer: *mut Handle, member: u32) -> u32;
    pub fn keycount_consumer_drop_all(consumer: *mut Handle) -> u32;
    pub fn keycount_consumer_sync(consumer: *mut Handle, cluster: *mut Handle) -> u32;
    pub fn keycount_consumer_rejoin(consumer: *mut Handle, cluster: *mut Handle) -> u32;
    pub fn keycount_consumer_give_up(consumer: *mut Handle) -> u32;
    pub fn keycount_consumer_poll(
        consumer: *mut Handle,
        cluster: *mut Handle,
        partition: u32,
        most: u32,
        from: *mut u32,
        count: *mut u32,
    ) -> u32;
    pub fn keycount_consumer_pending(
        consumer: *mut Handle,
        partition: u32,
        member: *mut u32,
        generation: *mut u32,
        from: *mut u32,
        to: *mut u32,
    ) -> u32;
    pub fn keycount_consumer_answered(
        consumer: *mut Handle,
        partition: u32,
        answer: u32,
        committed: u32,
    ) -> u32;
    pub fn keycount_consumer_member(consumer: *mut Handle, member: *mut u32) -> u32;
    pub fn keycount_consumer_generation(consumer: *mut Handle, generation: *mut u32) -> u32;
    pub fn keycount_consumer_holding(
        consumer: *mut Handle,
        partitions: *mut u32,
        room: usize,
        count: *mut usize,
    ) -> u32;
    pub fn keycount_consumer_base(consumer: *mut Handle, partition: u32, offset: *mut u32) -> u32;
    pub fn keycount_consumer_position(
        consumer: *mut Handle,
        partition: u32,
        offset: *mut u32,
    ) -> u32;
}

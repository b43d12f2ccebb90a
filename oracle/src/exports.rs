//! The exports of libgomxeli.a behind safe functions.

pub use crate::answer::Answer;

/// Declares each export and a function that calls it: `plain` takes numbers, `read` a state or frame
/// before them, `write` a state to be changed.
macro_rules! exports {
    (
        plain { $($plain:ident($($pa:ident: $pt:ty),*);)* }
        read { $($read:ident($($ra:ident: $rt:ty),*);)* }
        write { $($write:ident($($wa:ident: $wt:ty),*);)* }
    ) => {
        mod raw {
            #[link(name = "gomxeli", kind = "static")]
            unsafe extern "C" {
                $(#[link_name = concat!("gomxeli_", stringify!($plain))]
                pub safe fn $plain($($pa: $pt),*) -> u64;)*
                $(#[link_name = concat!("gomxeli_", stringify!($read))]
                pub fn $read(bytes: *const u8, length: usize, $($ra: $rt),*) -> u64;)*
                $(#[link_name = concat!("gomxeli_", stringify!($write))]
                pub fn $write(bytes: *mut u8, length: usize, $($wa: $wt),*) -> u64;)*
            }
        }
        $(pub fn $plain($($pa: $pt),*) -> Answer {
            Answer(raw::$plain($($pa),*))
        })*
        $(pub fn $read(bytes: &[u8], $($ra: $rt),*) -> Answer {
            // SAFETY: the export reads the given bytes and keeps no pointer.
            Answer(unsafe { raw::$read(bytes.as_ptr(), bytes.len(), $($ra),*) })
        })*
        $(pub fn $write(bytes: &mut [u8], $($wa: $wt),*) -> Answer {
            // SAFETY: the export reads and writes the given bytes and keeps no pointer.
            Answer(unsafe { raw::$write(bytes.as_mut_ptr(), bytes.len(), $($wa),*) })
        })*
    };
}

exports! {
    plain {
        subject_id_new(value: u16);
        service_id_new(value: u16);
        node_id_new(value: u8);
        transfer_id_new(value: u8);
        priority_try_from_u8(value: u8);
        subject_id_from_u16_truncating(value: u16);
        service_id_from_u16_truncating(value: u16);
        node_id_from_u8_truncating(value: u8);
        transfer_id_from_u8_truncating(value: u8);
        priority_from_u8_truncating(value: u8);
        transfer_id_next(id: u8);
        priority_next(priority: u8);
        priority_prev(priority: u8);
        priority_set_new_eq(priority: u8);
        priority_set_new_ge(priority: u8);
        priority_set_new_le(priority: u8);
        priority_set_new_gt(priority: u8);
        priority_set_new_lt(priority: u8);
        priority_set_contains(bits: u8, priority: u8);
        priority_set_insert(bits: u8, priority: u8);
        priority_set_remove(bits: u8, priority: u8);
        priority_set_first(bits: u8);
        priority_set_last(bits: u8);
        priority_set_is_empty(bits: u8);
        priority_set_complement(bits: u8);
        priority_set_not(bits: u8);
        priority_set_bitand(a: u8, b: u8);
        priority_set_bitor(a: u8, b: u8);
        priority_set_iter_next(bits: u8);
        tail_byte_new(sot: u8, eot: u8, toggle: u8, transfer_id: u8);
        tail_byte_sot(byte: u8);
        tail_byte_eot(byte: u8);
        tail_byte_toggle(byte: u8);
        tail_byte_transfer_id(byte: u8);
    }
    read {
        is_eot_frame();
        mcq_front(class: u32);
        mcq_back(class: u32);
        mcq_is_empty(class: u32);
        mcq_is_front(entry: u32);
        mcq_is_back(entry: u32);
        iq_contains(key: u16);
        iq_get(key: u16);
        iq_front();
        iq_back();
        img_has_subject(subject: u32);
        req_poll_push(service: u32, loop_back: u8);
    }
    write {
        mcq_open(classes: u32, entries: u32);
        mcq_remove(entry: u32);
        mcq_move_front(class: u32, entry: u32);
        mcq_move_back(class: u32, entry: u32);
        iq_open(k_max: u32, entries: u32);
        iq_get_mut(key: u16, value: u32);
        iq_insert(key: u16, value: u32);
        iq_remove(key: u16);
        iq_enqueue_front(key: u16);
        iq_enqueue_back(key: u16);
        iq_dequeue(key: u16);
        reg_open(slots: u32);
        reg_register(entry: u32, subject: u32);
        reg_unregister(entry: u32);
        reg_poll_pop();
        reg_hub_push_start(subject: u32);
        reg_hub_push_next();
        lb_open();
        lb_register(entry: u32, subject: u32);
        lb_unregister(entry: u32);
        lb_hub_push_start(subject: u32);
        lb_hub_push_next();
        req_open();
        req_register(entry: u32, service: u32);
        req_unregister(entry: u32);
        txm_open();
        txm_register(entry: u32, subject: u32, readiness: u8);
        txm_unregister(entry: u32);
        txm_update(entry: u32, readiness: u8);
        txm_pick(mask: u8, mtu: u32);
        txm_settle(frame: u8, readiness: u8, priority: u32, length: u32, last: u8);
        txr_open();
        txr_register(entry: u32, readiness: u8);
        txr_unregister(entry: u32);
        txr_update(entry: u32, readiness: u8);
        txr_pick(mask: u8, mtu: u32);
        txr_settle(frame: u8, readiness: u8, priority: u32, length: u32, last: u8);
        img_open();
        img_add_subject(subject: u32);
        img_remove_subject_range(first: u32, last: u32);
    }
}

//! The eight SMP functions, each in the order of document 01: "In this order, first failure
//! decides". Each gives the length of its accepted response, or the failed result.

use super::*;

impl Shelf {
    /// "**00h**: request 4 bytes, length 00h. Response 36 bytes, length 08h: 9 number of phys, 12
    /// to 19 identifier." "an accepted response has the change count in bytes 4 and 5"
    pub(super) fn report_general(&self, frame: &[u8], out: &mut Buffer) -> Result<usize, u8> {
        whole::<4>(frame, &[0x00])?;
        let response = accepted::<36>(out, REPORT_GENERAL);
        response[4..6].copy_from_slice(&self.changes.to_be_bytes());
        response[9] = self.number() as u8;
        response[12..20].copy_from_slice(&self.identifier);
        Ok(36)
    }

    /// "**01h**: request 4 bytes, length 00h. Response 60 bytes, length 0Eh: 12 to 19 the fixed
    /// text `RAILYARD`, 20 to 35 `PORTAL SHELF` and four spaces, 36 to 39 `0001`."
    pub(super) fn report_manufacturer_information(
        &self,
        frame: &[u8],
        out: &mut Buffer,
    ) -> Result<usize, u8> {
        whole::<4>(frame, &[0x00])?;
        let response = accepted::<60>(out, REPORT_MANUFACTURER_INFORMATION);
        response[4..6].copy_from_slice(&self.changes.to_be_bytes());
        response[12..20].copy_from_slice(b"RAILYARD");
        response[20..36].copy_from_slice(b"PORTAL SHELF    ");
        response[36..40].copy_from_slice(b"0001");
        Ok(60)
    }

    /// "**06h**: request 4 bytes, length 00h, type in byte 2. Response: 6 type, 7 number n, then n
    /// descriptors of 8 bytes, length 1 + 2n."
    pub(super) fn report_broadcast(
        &self,
        row: u32,
        frame: &[u8],
        out: &mut Buffer,
    ) -> Result<usize, u8> {
        let &[_, _, kind, _] = whole(frame, &[0x00])?;
        // "02h SMP FUNCTION FAILED for a broadcast type above 0Fh (06h)"
        if kind > 0x0F {
            return Err(SMP_FUNCTION_FAILED);
        }
        let n = self.list_broadcasts(row, kind, out);
        let [high, low] = self.changes.to_be_bytes();
        let head = [0x41, REPORT_BROADCAST, 0x00, 1 + 2 * n, high, low, kind, n];
        out[..8].copy_from_slice(&head);
        Ok(8 + 8 * usize::from(n))
    }

    /// "FFh first, then phys rising, then reason rising. A source sees FFh and the phys it reaches.
    /// Types other than 0h, 3h and 4h list nothing." 0h is Change, 3h SES and 4h Expander.
    fn list_broadcasts(&self, row: u32, kind: u8, out: &mut Buffer) -> u8 {
        let mut broadcasts = Broadcasts { out, n: 0 };
        match kind {
            0x3 => broadcasts.list(NO_PHY, 0x0, self.ses0),
            0x4 => broadcasts.list(NO_PHY, 0x3, self.expander3),
            0x0 => {}
            _ => return 0,
        }
        for (p, phy) in (0..).zip(&self.phys[..self.number()]) {
            if !reaches(row, phy.group) && !cfg!(fault = "list_unfiltered") {
                continue;
            }
            match kind {
                0x0 => broadcasts.list(p, 0x0, phy.change0),
                0x4 => {
                    broadcasts.list(p, 0x1, phy.expander1);
                    broadcasts.list(p, 0x2, phy.expander2);
                }
                _ => {}
            }
        }
        broadcasts.n
    }

    /// "**11h**: request 12 bytes, length 02h or 00h. Response 28 bytes, length 06h: 9 phy, then
    /// invalid dwords at 12, disparity errors at 16, lost synchronization at 20, reset problems at
    /// 24."
    pub(super) fn report_phy_error_log(
        &self,
        row: u32,
        frame: &[u8],
        out: &mut Buffer,
    ) -> Result<usize, u8> {
        let request = whole::<12>(frame, &[0x02, 0x00])?;
        let phy = &self.phys[self.addressed(row, request[9], PHY_VACANT)?];
        let response = accepted::<28>(out, REPORT_PHY_ERROR_LOG);
        response[4..6].copy_from_slice(&self.changes.to_be_bytes());
        response[9] = request[9];
        for (place, count) in response[12..].as_chunks_mut::<4>().0.iter_mut().zip(phy.errors) {
            *place = count.to_be_bytes();
        }
        Ok(28)
    }

    /// "**14h**: request 12 bytes, length 02h only. Response 64 bytes, length 0Fh: 9 phy, 15 the
    /// number 4, then from 16 four descriptors of 12 bytes: 3 source, 4 to 7 value, 8 to 11
    /// threshold."
    pub(super) fn report_phy_event(
        &self,
        row: u32,
        frame: &[u8],
        out: &mut Buffer,
    ) -> Result<usize, u8> {
        let request = whole::<12>(frame, &[0x02])?;
        let phy = &self.phys[self.addressed(row, request[9], PHY_VACANT)?];
        let response = accepted::<64>(out, REPORT_PHY_EVENT);
        response[4..6].copy_from_slice(&self.changes.to_be_bytes());
        response[9] = request[9];
        response[15] = 4;
        let descriptors = response[16..].as_chunks_mut::<12>().0;
        for (descriptor, monitor) in descriptors.iter_mut().zip(&phy.monitors) {
            descriptor[3] = monitor.source;
            descriptor[4..8].copy_from_slice(&monitor.value.to_be_bytes());
            descriptor[8..12].copy_from_slice(&monitor.threshold.to_be_bytes());
        }
        Ok(64)
    }

    /// "The request has 8 bytes, length 01h, starting index in 6 and 7." Then "result 21h NO
    /// MANAGEMENT ACCESS RIGHTS for other sources comes directly after 03h": "only source group 1
    /// may ask".
    pub(super) fn report_phy_event_list(
        &self,
        source: u32,
        frame: &[u8],
        out: &mut Buffer,
    ) -> Result<usize, u8> {
        let by_reach = cfg!(fault = "list_by_reach") && self.reach(source) == self.reach(1);
        let by_row = cfg!(fault = "list_by_row") && self.table[source as usize] == u32::MAX;
        let may_ask = source == 1 || by_reach || by_row || cfg!(fault = "list_for_all");
        if cfg!(fault = "rights_before_length") && !may_ask {
            return Err(NO_MANAGEMENT_ACCESS_RIGHTS);
        }
        let &[_, _, _, _, _, _, high, low] = whole(frame, &[0x01])?;
        if !may_ask {
            return Err(NO_MANAGEMENT_ACCESS_RIGHTS);
        }
        let (first, entries) = self.store.list(u16::from_be_bytes([high, low]));
        Ok(self.send_list(first, entries, out))
    }

    /// "The response has 4 and 5 the change count, 6 and 7 the first index returned, 8 and 9 the
    /// last index stored (0000h if none), 10 the number 3, 11 the number of descriptors, then from
    /// 12 descriptors of 12 bytes as in 14h with the phy at byte 2". The length is 2 + 3n.
    fn send_list<'a>(
        &self,
        first: u16,
        entries: impl Iterator<Item = &'a Entry>,
        out: &mut Buffer,
    ) -> usize {
        let mut n = 0;
        for (descriptor, entry) in out[12..].as_chunks_mut::<12>().0.iter_mut().zip(entries) {
            let Monitor { source, value, threshold } = entry.monitor;
            let [a, b, c, d] = value.to_be_bytes();
            let [e, f, g, h] = threshold.to_be_bytes();
            *descriptor = [0, 0, entry.phy, source, a, b, c, d, e, f, g, h];
            n += 1;
        }
        out[..4].copy_from_slice(&[0x41, REPORT_PHY_EVENT_LIST, 0x00, 2 + 3 * n]);
        out[4..6].copy_from_slice(&self.changes.to_be_bytes());
        out[6..8].copy_from_slice(&first.to_be_bytes());
        out[8..10].copy_from_slice(&self.store.last.to_be_bytes());
        out[10..12].copy_from_slice(&[3, n]);
        12 + 12 * usize::from(n)
    }

    /// "**91h**: request 40 bytes, length 09h or 00h, operation in byte 10 .. Response 4 bytes."
    pub(super) fn phy_control(
        &mut self,
        row: u32,
        frame: &[u8],
        out: &mut Buffer,
    ) -> Result<usize, u8> {
        let request = whole::<40>(frame, &[0x09, 0x00])?;
        self.expect_changes(request[4], request[5])?;
        let p = self.addressed(row, request[9], SMP_ZONE_VIOLATION)?;
        let phy = &mut self.phys[p];
        match request[10] {
            // "00h none"
            0x00 => {}
            // "01h link reset enables the phy and originates Change"
            0x01 => {
                phy.enabled = true;
                self.originate_change(p);
            }
            // "03h disable originates Change only if the phy was enabled"
            0x03 => {
                if std::mem::replace(&mut phy.enabled, false) || cfg!(fault = "disable_always") {
                    self.originate_change(p);
                }
            }
            // "05h sets the four error counts to 0"
            0x05 => phy.errors = [0; 4],
            // "13h UNKNOWN PHY OPERATION (91h, any operation not named below)"
            _ => return Err(UNKNOWN_PHY_OPERATION),
        }
        accepted::<4>(out, PHY_CONTROL);
        Ok(4)
    }

    /// "**93h** .. bit 0 of byte 6 clears peaks. .. Descriptor i sets monitor i .. Then, if
    /// clearing, .. Response 4 bytes."
    pub(super) fn configure_phy_event(
        &mut self,
        row: u32,
        frame: &[u8],
        out: &mut Buffer,
    ) -> Result<usize, u8> {
        let (head, descriptors) = with_descriptors(frame)?;
        self.expect_changes(head[4], head[5])?;
        let unknown = |descriptor: &[u8; 8]| !may_watch(descriptor[3]);
        if cfg!(fault = "sources_before_reach") && descriptors.iter().any(unknown) {
            return Err(UNKNOWN_PHY_EVENT_SOURCE);
        }
        let p = head[9];
        let phy = self.addressed(row, p, SMP_ZONE_VIOLATION)?;
        let phy = &mut self.phys[phy];
        // "02h SMP FUNCTION FAILED for .. more than four descriptors (93h)"
        if descriptors.len() > phy.monitors.len() {
            return Err(SMP_FUNCTION_FAILED);
        }
        // "then 17h UNKNOWN PHY EVENT SOURCE (93h). The first failing descriptor settles the
        // answer", and nothing is set before all are judged.
        for (monitor, descriptor) in phy.monitors.iter_mut().zip(descriptors) {
            if unknown(descriptor) {
                return Err(UNKNOWN_PHY_EVENT_SOURCE);
            }
            if cfg!(fault = "set_before_refusal") {
                monitor.configure(descriptor);
            }
        }
        let clear = head[6] & 1 == 1;
        if clear && cfg!(fault = "clear_before_set") {
            phy.clear_peaks(p, &mut self.store);
        }
        if clear && cfg!(fault = "stored_before_set") {
            phy.keep_peaks(p, &mut self.store);
        }
        for (monitor, descriptor) in phy.monitors.iter_mut().zip(descriptors) {
            monitor.configure(descriptor);
        }
        if clear && !cfg!(fault = "clear_before_set") {
            phy.clear_peaks(p, &mut self.store);
        }
        accepted::<4>(out, CONFIGURE_PHY_EVENT);
        Ok(4)
    }
}

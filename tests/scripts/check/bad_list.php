<?php
[] = $a;